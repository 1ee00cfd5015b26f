import pandas

values = pandas.read_csv('values.csv', index_col='quarter')
values.index = pandas.PeriodIndex(values.index, freq='Q')
growth = 100 * values.pct_change(4)
print(growth.tail(4).round(1))
print(values.groupby(values.index.year).sum(min_count=4))
