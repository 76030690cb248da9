module maulviolet.invalid/tscache

go 1.19
