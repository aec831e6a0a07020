# Over the outline of a source: prints the invocations whose numbers `wanted` has, with blanks between them. They are
# numbered from 0 by module, mode and place in it; a module is followed by those of the programs that refine its modes.

$1 == "program" && root == "" { root = $3 }
$1 == "module" { modules[$4, ++module_count[$4]] = $3 }
$1 == "mode" {
	modes[$3, ++mode_count[$3]] = $3 "." $4
	refined[$3, mode_count[$3]] = $6
}
$1 == "invoke" {
	mode = $3 "." $4
	invocations[mode, ++count[mode]] = mode "." $5 " of line " $2
}

function visit(program,    i, k, m, module, mode) {
	for (i = 1; i <= module_count[program]; i++) {
		module = modules[program, i]
		for (k = 1; k <= mode_count[module]; k++) {
			mode = modes[module, k]
			for (m = 1; m <= count[mode]; m++) text[number++] = invocations[mode, m]
		}
		for (k = 1; k <= mode_count[module]; k++) if (refined[module, k] != "-") visit(refined[module, k])
	}
}

END {
	visit(root)
	n = split(wanted, which, " ")
	for (i = 1; i <= n; i++) if (which[i] in text) print "invocation " which[i] ": " text[which[i]]
}
