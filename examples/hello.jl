# A first script. Each line prints its arguments, one after the other.
println("Hello from ", 1 + 1, " processes, one day")
println(6 * 7, " ", -7 ÷ 2, " ", -7 % 2, " ", mod(-7, 2))
println("The greatest number is ", typemax(Int), ", and one more is ", typemax(Int) + 1)
