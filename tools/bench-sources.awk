# Sources for tools/bench, of about `size` bytes: of communicators, tasks, switches, invocations, programs, brackets or
# operators. `fault` type gives them a task, behind all right names, whose expression is of the wrong type.

function add(part, text) {
	texts[part, count[part]++] = text
	total += length(text)
}

function put(from, upto,    part, i) {
	for (part = from; part <= upto; part++) for (i = 0; i < count[part] + 0; i++) printf "%s", texts[part, i]
}

function repeated(text, times,    all) {
	for (all = ""; times > 0; times = int(times / 2)) {
		if (times % 2) all = all text
		text = text text
	}
	return all
}

# A name with its number, made as long as a name may be.
function longest(word, i,    name) {
	name = sprintf("%s_%05d_", word, i)
	return name repeated("x", 48 - length(name))
}

# What one more item of the kind adds to the parts of its source: 1 communicators, 2 tasks, 3 what is in modes,
# 5 further programs.
function item(i) {
	if (kind == "communicators") {
		add(1, "  communicator int " longest("level", i) " period 1000000 init -9000000000" (i * 7919) % 100000 ";\n")
	} else if (kind == "tasks") {
		add(2, sprintf("    task regulate_%04d input (int wanted, int measured, bool tripped)\n", i) \
			"      output (int duty = if(tripped || wanted < measured, 0, (wanted - measured) * 3 / 2),\n" \
			"        bool saturated = wanted - measured > 1000, int kept = (wanted + measured) / 2) worst 20;\n")
	} else if (kind == "switches") {
		add(3, "      switch (smooth > 1000 && wanted < 500 || current > 80 && !tripped ||\n" \
			"        (wanted - smooth) * 2 > duty + 100 || stopped && current <= 5 && wanted == 0 ||\n" \
			sprintf("        smooth %% 100 != 7 && duty >= -%d && !(tripped && stopped) && current * 5 < 1000, m);\n", i))
	} else if (kind == "invocations") {
		one_invocation(i)
	} else if (kind == "programs") {
		add(3, sprintf("    mode %s_%05d period 100 program Program_%05d { }\n", "refined", i, i))
		add(5, sprintf("program Program_%05d {\n", i))
		for (k = 0; k < 4; k++) {
			add(5, sprintf("  communicator int level_of_%05d_%d_in_thousandths_of_a_metre period 100 init 0;\n", i, k))
		}
		add(5, "}\n")
	} else if (kind == "brackets") {
		add(2, sprintf("    task deep_%04d input (int a) output (int b = ", i) \
			repeated("-(", 160) "a" repeated(")", 160) ") worst 1;\n")
	} else if (kind == "operators") {
		add(2, sprintf("    task long_%04d input (int a, int b) output (int c = a", i) \
			repeated(" + b * a - b / a % b", 45) ") worst 1;\n")
	}
}

# 128 invocations are in a mode, each of a task of its own that writes a communicator of its own.
function one_invocation(i,    k, reads) {
	if (i < 128) {
		add(1, sprintf("  communicator int duty_of_drive_%03d period 100 init 0;\n", i))
		add(2, sprintf("    task control_%03d input (int a, int b, int c, int d, int e, int f, int g, int h, ", i) \
			"int i, int j, int k, int l, int m, int n, int o, int p, int q, int r) output (int s = a + r) worst 1;\n")
	}
	if (i % 128 == 0) add(3, (i ? "    }\n" : "") sprintf("    mode run_%02d period 1000 {\n", i / 128))
	for (k = 0; k < 18; k++) reads = reads (k ? ", " : "") sprintf("(measured_speed_%02d, %d)", k, (i + k) % 50)
	add(3, sprintf("      invoke control_%03d input (%s) output ((duty_of_drive_%03d, 10));\n", i % 128, reads, i % 128))
}

function source(    i, was, k, start) {
	start = kind == "invocations" ? "run_00" : "m"
	add(0, "// A source of " kind ".\nprogram Bench {\n")
	if (kind == "switches") {
		add(0, "  sensor int smooth period 100 init 0;\n  sensor int wanted period 100 init 0;\n")
		add(0, "  sensor int current period 100 init 0;\n  sensor int duty period 100 init 0;\n")
		add(0, "  sensor bool tripped period 100 init false;\n  sensor bool stopped period 100 init false;\n")
	}
	for (k = 0; k < 18 && kind == "invocations"; k++) {
		add(0, sprintf("  sensor int measured_speed_%02d period 1 init 0;\n", k))
	}
	add(2, "  module Main start " start " {\n")
	if (fault == "type") add(2, "    task wrong input () output (bool b = 1) worst 1;\n")
	if (start == "m") add(3, "    mode m period 100 {\n" (kind == "programs" ? "    }\n" : ""))
	add(4, (kind == "programs" ? "" : "    }\n") "  }\n}\n")
	for (i = 0; total + (total - was) <= size || !i; i++) {
		was = total
		item(i)
	}
	put(0, 5)
}
