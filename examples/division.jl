# Quotients and remainders of whole numbers, as Julia has them.
println("div, rem and mod of 7 by 2 with all signs:")
println(div(7, 2), " ", rem(7, 2), " ", mod(7, 2))
println(div(-7, 2), " ", rem(-7, 2), " ", mod(-7, 2))
println(div(7, -2), " ", rem(7, -2), " ", mod(7, -2))
println(-7 ÷ -2, " ", -7 % -2, " ", mod(-7, -2))
println(rem(typemin(Int), -1))
println(div(typemin(Int), -1))    # the quotient is beyond the greatest number: ERROR: DivideError()
println("this line isn't reached")
