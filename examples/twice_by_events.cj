# A function that is compiled while a run goes on: the run's next call of it enters the version.
# corejit replay stats < examples/twice_by_events.cj
fun main(n; r) {
1: call r = twice(n) -> 2
2: call r = twice(r) -> 3
3: return r
}
fun twice(x) {
1: op x = x * 2 -> 2
2: return x
}
events
begin main 3 limit 100
step 1 2
compile twice { const }
