# Reads a replay of a run in which a, b, c are cut off from d, e. Prints each enter, write and leave, and each delivery
# across the cut.
/^  #[0-9]+ ([abc]>[de]|[de]>[abc]) / { across[substr($1, 2) ":"] }
$2 == "deliver" && $3 in across { print "across the cut:", $0 }
$2 ~ /^(enter|write|leave)$/ { print substr($0, length($1) + 2) }
