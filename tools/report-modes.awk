# Of report.awk: the modules with their modes, and between these the switches, as the E code has them: edge[MODE, k] is the target of the
# switch k of a mode, k from 1 to edge_count[MODE].

# Where control goes on from an address, past plain jumps.
function past_jumps(at,    steps) {
	for (steps = 0; instr[at] == "jump" && steps <= instrs; steps++) at = first_operand[at]
	return at
}

# Where a mode decides at the end of its round: the target of its trigger for switches.
function decision(name,    at, steps) {
	at = entered_at[name] + 1
	for (steps = 0; steps <= instrs; steps++) {
		at = past_jumps(at)
		if (instr[at] == "future" && second_operand[at] == "switch") return past_jumps(third_operand[at])
		if (instr[at] !~ /^(future|fork)$/) return -1
		at++
	}
	return -1
}

# The switches of a mode: a jump to where another is entered, or else to its own next round.
function find_edges_of(name,    at, steps, to) {
	at = decision(name)
	for (steps = 0; steps <= instrs && instr[at] ~ /^(ifmode|jumpif)$/; steps++) {
		if (instr[at] == "ifmode") at = past_jumps(second_operand[at])
		else {
			to = past_jumps(second_operand[at])
			edge[name, ++edge_count[name]] = instr[to] == "enter" ? first_operand[to] : name
			at = past_jumps(at + 1)
		}
	}
}

function find_edges(    i, k) {
	for (i = 1; i <= modules; i++)
		for (k = 1; k <= mode_count[module[i]]; k++) find_edges_of(module[i] "." mode[module[i], k])
}

function print_modules(    i, m) {
	print "<section><h2 id=\"modules\">Modules and modes</h2>"
	if (modules) print "<p class=\"legend\">The first mode has a thick border. Switches are tried at the end of a round, in the order of their numbers.</p>"
	for (i = 1; i <= modules; i++) {
		m = module[i]
		printf "<section id=\"mod-%s\"><h3>%s <small>%s%s</small></h3>", m, m, "rounds of " counted(period_of[m], "tick"), (refines[m] == "" ? "" : ", refines <a href=\"#m-" refines[m] "\">" refines[m] "</a>")
		graph(m)
		mode_table(m)
		print "</section>"
	}
	print "</section>"
}

# Boxes in a line, with a switch to a later mode above them and one to an earlier mode below.
function graph(m,    n, k, c, far, top, bottom, name, high, place) {
	n = mode_count[m]
	for (k = 1; k <= n; k++) place[mode[m, k]] = k
	for (k = 1; k <= n; k++) {
		name = m "." mode[m, k]
		for (c = 1; c <= edge_count[name]; c++) {
			far = place[last_of(edge[name, c])] - k
			if (far + 1 > top && far >= 0) top = far + 1
			if (-far > bottom) bottom = -far
		}
	}
	high = 10 + 24 * top + 32 + (bottom ? 24 * bottom + 24 : 10)
	printf "<div class=\"wide\"><svg class=\"chart\" role=\"img\" aria-label=\"modes and switches of %s\" viewBox=\"0 0 %d %d\" width=\"%d\" height=\"%d\">", m, n * 190, high, n * 190, high
	printf "<defs><marker id=\"tip-%s\" viewBox=\"0 0 8 8\" refX=\"7\" refY=\"4\" markerWidth=\"7\" markerHeight=\"7\" orient=\"auto\"><path class=\"tip\" d=\"M0 0L8 4L0 8z\"/></marker></defs>", m
	for (k = 1; k <= n; k++) {
		name = m "." mode[m, k]
		for (c = 1; c <= edge_count[name]; c++) arrow(m, k, place[last_of(edge[name, c])], c, 10 + 24 * top)
		printf "<a href=\"#m-%s\"><rect class=\"node%s\" x=\"%d\" y=\"%d\" width=\"130\" height=\"32\" rx=\"6\"/><text x=\"%d\" y=\"%d\" text-anchor=\"middle\">%s</text></a>", name, (mode[m, k] == start_of[m] ? " first" : ""), 20 + (k - 1) * 190, 10 + 24 * top, 85 + (k - 1) * 190, 30 + 24 * top, cut(mode[m, k])
	}
	print "</svg></div>"
}

function cut(name) { return length(name) <= 17 ? name : substr(name, 1, 10) "~" substr(name, length(name) - 5) }

# From the box k to the box to, of which the upper side is at y.
function arrow(m, k, to, number, y,    x, x2, far) {
	x = 20 + (k - 1) * 190
	x2 = 20 + (to - 1) * 190
	far = to - k
	if (far >= 0) curve(m, x + (far ? 85 : 30), y, x2 + (far ? 40 : 100), y, -18 - 24 * far - 10 * !far, number)
	else curve(m, x + 45, y + 32, x2 + 90, y + 32, 18 - 24 * far, number)
}

function curve(m, x, y, x2, y2, bend, number) {
	printf "<path class=\"edge\" marker-end=\"url(#tip-%s)\" d=\"M%d %dC%d %d %d %d %d %d\"/>", m, x, y, x, y + bend, x2, y + bend, x2, y2
	printf "<text class=\"lab\" x=\"%d\" y=\"%d\" text-anchor=\"middle\">%d</text>", (x + x2) / 2, y + bend * 0.75 + (bend < 0 ? -3 : 12), number
}

function mode_table(m,    k, q, c, name) {
	print "<div class=\"wide\"><table><thead><tr><th>mode</th><th>jobs, worst case</th><th>goes to</th></tr></thead><tbody>"
	for (k = 1; k <= mode_count[m]; k++) {
		name = m "." mode[m, k]
		printf "<tr id=\"m-%s\"><td class=\"name\">%s%s</td><td>", name, mode[m, k], (mode[m, k] == start_of[m] ? " <i>first</i>" : "")
		for (q = 1; q <= inv_count[name]; q++) printf "%s<a href=\"#i-%s\">%s</a> %s", (q > 1 ? ", " : ""), inv_of[name, q], last_of(inv_of[name, q]), worst[inv_of[name, q]]
		printf "</td><td>"
		for (c = 1; c <= edge_count[name]; c++) printf "%s%d. <a href=\"#m-%s\">%s</a>%s", (c > 1 ? "; " : ""), c, edge[name, c], last_of(edge[name, c]), ((name, c) in condition ? " where <code>" escaped(condition[name, c]) "</code>" : "")
		print "</td></tr>"
	}
	print "</tbody></table></div>"
}
