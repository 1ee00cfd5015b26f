import pandas

volumes = pandas.read_csv('volumes.csv', index_col='quarter', na_values=['missing', 'nobase', 'nolink', 'range'])
print(volumes[['TOTAL', 'MANUF', 'FISHING']].tail(3))
