# Over the outline of an object (object.awk), and then the lines that plan was given (`reading` says which): what the line `number`
# should be; or, with `all`, the modules in their order, each with its modes.

reading == "outline" && $1 == "module" {
	module[++modules] = $3
	parent[modules] = $5
}
reading == "outline" && $1 == "mode" { modes[$3] = modes[$3] " " $4 }

# The modes that are chosen in front of the line that is told.
reading == "modes" && FNR < number {
	sub(/\r$/, "")
	if ($0 == "" || /^#/) next
	chosen[$2 "." $3] = 1
	lines++
}

function list_all(    i) {
	for (i = 1; i <= modules; i++) print "module " module[i] (parent[i] == "-" ? "" : ", active where " parent[i] " runs") ", with the modes" modes[module[i]]
}

END {
	if (all) {
		list_all()
		exit
	}
	k = lines + 1
	if (k > modules) exit
	text = "the next line is that of the module " module[k]
	if (parent[k] != "-" && !(parent[k] in chosen)) print text ", which is inactive, since " parent[k] " doesn't run: mode " module[k] " -"
	else {
		n = split(modes[module[k]], mode, " ")
		for (i = 1; i <= n; i++) list = list (i == 1 ? "" : i == n ? " or " : ", ") "mode " module[k] " " mode[i]
		print text ": " list
	}
}
