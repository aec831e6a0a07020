# Over the bytes of an object, as `od -An -v -tu1` prints them, up to its invocations: an outline of its modules, modes and
# invocations, as outline.awk prints one of a source, without lines and ends; a module's line ends with the mode that it refines, or -. It reads what has been found well-formed.

function byte() {
	while (taken == count) {
		if ((getline text) <= 0) exit 1
		count = split(text, field, " ")
		taken = 0
	}
	return field[++taken] + 0
}

function number(bytes,    all) {
	while (bytes-- > 0) all = all * 256 + byte()
	return all
}

function name(    n, all) {
	for (n = byte(); n > 0; n--) all = all sprintf("%c", byte())
	return all
}

function pass(bytes) { while (bytes-- > 0) byte() }

function pass_ends(    n) { for (n = number(2); n > 0; n--) pass(byte() == 0 ? 6 : 2) }

BEGIN {
	pass(4)
	if (number(2) == 2) name()
	comms = number(2)
	modes = number(2)
	modules = number(2)
	ports = number(2)
	tasks = number(2)
	invocations = number(2)
	pass(2)
	for (i = 0; i < comms; i++) {
		name()
		pass(14)
	}
	for (i = 0; i < modes; i++) {
		mode[i] = name()
		of[i] = number(2)
		period[i] = number(4)
	}
	print "program 0 object"
	for (i = 0; i < modules; i++) {
		module[i] = name()
		parent = number(2)
		print "module 0", module[i], (parent == 65535 ? "object -" : "- " module[of[parent]] "." mode[parent])
		pass(2)
	}
	for (i = 0; i < modes; i++) print "mode 0", module[of[i]], mode[i], period[i], "-"
	for (i = 0; i < ports; i++) {
		name()
		pass(3)
	}
	for (i = 0; i < tasks; i++) {
		task[i] = name()
		pass(7)
		pass(number(2))
		pass(number(2))
	}
	for (i = 0; i < invocations; i++) {
		k = number(2)
		print "invoke 0", module[of[k]], mode[k], task[number(2)]
		pass(2)
		pass_ends()
		pass_ends()
	}
	exit
}
