# Whole numbers have 64 bits and wrap.
println(typemax(Int) + 1 - typemin(Int))
println(9_223_372_036_854_775_807 * 2)
println(-9223372036854775808 - 1)
println(3 * 6148914691236517206, "; " , -typemin(Int))
