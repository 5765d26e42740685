# Lists, ranges, tuples and arrays, and the functions on them.
scores = [12, 7, 30, 7]
println(scores, " has ", length(scores), " numbers, ", sum(scores), " in all")
println("from ", minimum(scores), " to ", maximum(scores), "; the second is ", scores[2])
println("the middle: ", scores[2:3], ", the whole once more: ", vcat(scores, 1:3))
# A range is its two ends; its elements are made where they are wanted.
days = 1:7
println(days, " is ", collect(days), ", and ", sum(days), " added up")
# An array in rows, read by row and column.
board = [1 2 3; 4 5 6]
println(board, " of size ", size(board), ": ", board[2, 3], " ", board[1, 1:2])
# A process may be asked for a collection.
longest = remotecall(xs -> (maximum(xs), length(xs)), 1, scores)
println(fetch(longest))
println(sum(scores) > 50 && isodd(scores[2]) ? "more than fifty" : "not that many")
println([], " ", ("a", true, nothing), " ", ["a", (1,)])
println(scores[5])    # there is no fifth one: ERROR: BoundsError()
