# Over a listing: each choice of modes in which all modules stay, as input of `plan`, the choice number `wanted`, from 1; without `wanted`
# how many there are. A module is inactive, `-`, where the mode that it refines isn't chosen.

$1 == "module" {
	module[++modules] = $2
	if (NF == 6) refines[$2] = $6
}

$1 == "mode" {
	split($2, part, ".")
	mode[part[1], ++mode_count[part[1]]] = part[2]
}

# Chooses for the modules from number i on.
function choose(i,    m, k) {
	if (i > modules) {
		if (++made == wanted) for (k = 1; k <= modules; k++) print "mode " module[k] " " chosen[module[k]]
		return
	}
	m = module[i]
	if (m in refines && !is_chosen(refines[m])) {
		chosen[m] = "-"
		choose(i + 1)
		return
	}
	for (k = 1; k <= mode_count[m] && (!wanted || made < wanted) && made < 100000; k++) {
		chosen[m] = mode[m, k]
		choose(i + 1)
	}
}

function is_chosen(name,    part) {
	split(name, part, ".")
	return chosen[part[1]] == part[2]
}

END {
	choose(1)
	if (!wanted) print made
}
