# A call on process 2 gives a future at once; `fetch` waits for what it comes to.
square = remotecall(x -> x * x, 2, 12)
println("asked for ", square)
println(fetch(square))
# What was fetched once is kept here, and isn't asked for again.
println(fetch(square), " once more")
# Two calls on their way at the same time, and one of this very process.
a = remotecall(n -> n * (n + 1), 2, 100)
b = remotecall(n -> div(n, 7), 2, 1000)
c = remotecall(n -> -n, 1, 5)
sum = fetch(a)
println(sum + 1, " ", fetch(b), " ", fetch(c))
