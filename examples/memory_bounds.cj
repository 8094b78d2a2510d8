# A memory has 64 cells where nothing is said. An address outside ends the run.
# corejit alone < examples/memory_bounds.cj
fun main(a) {
1: store [a] = 9 -> 2
2: load a = [a] -> 3
3: return a
}
calls
call main 63 limit 10
call main 64 limit 10
call main -1 limit 10
call main 0 memory 0 limit 10
