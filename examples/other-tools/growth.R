values <- read.csv("values.csv", row.names = "quarter", na.strings = c("missing", "nobase", "nolink", "range"))
rooms <- ts(values$ROOMS, start = c(2021, 1), frequency = 4)
print(round(100 * (rooms / lag(rooms, -4) - 1), 1))
