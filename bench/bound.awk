# The module with another MOST_IN_RUNS: the bound in `wire::put_bytes` and in `wire::copy` is `bound`, where it
# was 64. Fails where the module has not that number there, once in each.
/^define / { inside = /@"wire::(put_bytes|copy)"\(/ }
inside && / icmp ult i64 64, / { sub(/ult i64 64,/, "ult i64 " bound ","); found++ }
{ print }
END { exit found != 2 }
