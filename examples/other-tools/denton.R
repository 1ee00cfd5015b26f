# Proportional Denton benchmarking from its definition: the ratios of values to indicator change least, and the years add up.
indicator <- c(982, 1008, 1022, 1008, 990, 1016, 1027, 1015, 1005, 1030, 1035, 1015)
benchmarks <- c(40000, 41614)
quarters <- length(indicator)
years <- length(benchmarks)

changes <- diff(diag(quarters))
sums <- matrix(0, years, quarters)
for (year in 1:years) sums[year, 4 * year - 3:0] <- indicator[4 * year - 3:0]

conditions <- rbind(cbind(2 * crossprod(changes), t(sums)), cbind(sums, matrix(0, years, years)))
ratios <- solve(conditions, c(rep(0, quarters), benchmarks))[1:quarters]
print(ts(round(ratios * indicator, 1), start = c(1998, 1), frequency = 4))
cat("objective", format(sum(diff(ratios)^2), digits = 12), "\n")
