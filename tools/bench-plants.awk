# Plants for tools/bench.
# A plant is a source of root modules: `modules` of them, of which the first `many` have `modes` modes and the others
# one; a mode has `jobs` invocations, with `chain` each reads a port of the one before, and `switches` that never hold;
# `tasks` more tasks, `sensors`, a round of `period` ticks; with `counts` each output grows from round to round. With `times`
# the first module has so many rounds in one of the others.
# Readers is a source with 20 invocations that write 60 ports and 100 that read 56 of them each.
# Generated is the program of `bulk`, with `modules` modules.

function period_of_plant(m) { return m || !times ? period : period / times }

function plant(    m, k, j, s) {
	add(0, "program Plant {\n")
	for (s = 0; s < sensors; s++) add(0, sprintf("  sensor int sensor_%04d period %d init 0;\n", s, period))
	for (m = 0; m < modules; m++) {
		for (j = 0; j < jobs; j++) add(0, sprintf("  communicator int out_%02d_%03d period %d init 0;\n", m, j, period_of_plant(m)))
		add(1, sprintf("  module module_%02d start mode_000 {\n", m))
		for (j = 0; j < jobs + (m ? 0 : tasks); j++) add(1, task_of_plant(j))
		for (k = 0; k < (m < many ? modes : 1); k++) {
			add(1, sprintf("    mode mode_%03d period %d {\n", k, period_of_plant(m)))
			if (chain) for (j = 0; j < jobs; j++) add(1, sprintf("      port int port_%03d;\n", j))
			for (j = 0; j < jobs; j++) add(1, invocation_of_plant(m, j))
			for (s = 0; s < switches; s++) {
				add(1, sprintf("      switch (out_%02d_000 > %d, mode_000);\n", m, 1000000000 + s))
			}
			add(1, "    }\n")
		}
		add(1, "  }\n")
	}
	add(1, "}\n")
	put(0, 1)
}

function task_of_plant(j) {
	return sprintf("    task job_%04d input (int a%s) output (int b = %s%s) worst 1;\n", j, \
		chain && j && j < jobs ? ", int c" : "", counts ? "a + 1" : "a", chain && j < jobs ? ", int d = a" : "")
}

function invocation_of_plant(m, j,    out) {
	out = sprintf("out_%02d_%03d", m, j)
	return sprintf("      invoke job_%04d input ((%s, 0)%s) output ((%s, 1)%s);\n", j, out, \
		chain && j ? sprintf(", port_%03d", j - 1) : "", out, chain ? sprintf(", port_%03d", j) : "")
}

function readers(    j, k, parameters, ports) {
	add(0, "program Readers {\n  sensor int shown period 200 init 0;\n")
	add(1, "  module Main start m {\n")
	add(2, "    mode m period 200 {\n")
	for (k = 0; k < 60; k++) add(2, sprintf("      port int port_%02d;\n", k))
	for (j = 0; j < 20; j++) {
		add(1, sprintf("    task write_%02d input (int a) output (int b = a, int c = a, int d = a) worst 1;\n", j))
		add(2, sprintf("      invoke write_%02d input ((shown, 0)) ", j))
		add(2, sprintf("output (port_%02d, port_%02d, port_%02d);\n", 3 * j, 3 * j + 1, 3 * j + 2))
	}
	for (k = 0; k < 56; k++) {
		parameters = parameters (k ? ", " : "") sprintf("int a%02d", k)
		ports = ports (k ? ", " : "") sprintf("port_%02d", k)
	}
	for (j = 0; j < 100; j++) {
		add(0, sprintf("  communicator int seen_%03d period 200 init 0;\n", j))
		add(1, sprintf("    task read_%03d input (%s) output (int b = a00) worst 1;\n", j, parameters))
		add(2, sprintf("      invoke read_%03d input (%s) output ((seen_%03d, 1));\n", j, ports, j))
	}
	add(2, "    }\n  }\n}\n")
	put(0, 2)
}

function generated(    k) {
	add(0, "program Bulk {\n  sensor int s period 10 init 0;\n")
	for (k = 0; k < modules; k++) {
		add(0, sprintf("  communicator int c%d period 100 init %d;\n", k, k))
		add(1, sprintf("  module M%d start m {\n", k))
		add(1, sprintf("    task a input (int x, int y) output (int z = x * %d + y) worst 5;\n", k + 1))
		add(1, "    task b input (int x) output (int y = x) worst 5;\n    mode m period 1000 {\n      port int p;\n")
		add(1, sprintf("      invoke a input ((s, 0), (c%d, 0)) output (p);\n", (k + modules - 1) % modules))
		add(1, sprintf("      invoke b input (p) output ((c%d, 10));\n    }\n  }\n", k))
	}
	add(1, "}\n")
	put(0, 1)
}
