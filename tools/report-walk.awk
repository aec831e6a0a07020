# Of report.awk: the schedules that `show` lists, walked node by node with each job at its worst case: made, how many nodes there are; of node
# id node_start[id], node_end[id], node_modes[id], and who has the processor, run[id, k], k from 1 to runs[id]; paths.
# Nodes are numbered as they are met: at each start of a frame each choice of modes of the modules whose rounds begin there, the last first.

# The starts of a frame: start[j], j from 1 to starts.
function find_starts(    i, at, next_one) {
	frame = roots > 0
	for (i = 1; i <= roots; i++) frame = common(frame, period_of[root[i]])
	for (at = 0; at < frame; at = next_one) {
		start[++starts] = at
		next_one = frame
		for (i = 1; i <= roots; i++)
			if (at - at % period_of[root[i]] + period_of[root[i]] < next_one) next_one = at - at % period_of[root[i]] + period_of[root[i]]
	}
	start[starts + 1] = frame
}

function walk() {
	find_starts()
	if (roots) visit(1, 1, 0, "", 1)
	if (made && paths != told_paths) disagree("the walk of the schedules found " counted(paths, "path") " where check tells " told_paths)
	compare_plans()
}

# From module i on at start j, where the path has so many jobs; stays: whether no module has changed its mode on it.
function visit(j, i, jobs, names, stays,    m, k, name, q, same) {
	if (i > roots) {
		serve(j, jobs, names, stays)
		return
	}
	m = root[i]
	if (start[j] % period_of[m]) {
		chosen[i, j] = chosen[i, j - 1]
		visit(j, i + 1, jobs, names, stays)
		return
	}
	for (k = 1; k <= mode_count[m]; k++) {
		name = m "." mode[m, k]
		chosen[i, j] = name
		for (q = 1; q <= inv_count[name]; q++) {
			job[jobs + q - 1] = inv_of[name, q]
			round_start[jobs + q - 1] = start[j]
			left[jobs + q - 1, j - 1] = worst[inv_of[name, q]]
		}
		same = stays && (j == 1 || chosen[i, j - 1] == name)
		visit(j, i + 1, jobs + inv_count[name], names (names == "" ? "" : ", ") name, same)
	}
}

# The list of the node that was chosen, and the nodes behind it.
function serve(j, jobs, names, stays,    id, q) {
	id = made++
	for (q = 0; q < jobs; q++) left[q, j] = left[q, j - 1]
	node_modes[id] = names
	node_start[id] = start[j]
	node_end[id] = start[j + 1]
	go_through(id, j)
	if (j == starts) end_path(jobs, stays)
	else visit(j + 1, 1, jobs, "", stays)
}

# A dispatch waits for the release of its job, and ends where the job is done or its time is over.
function go_through(id, j,    now, k, word, q, takes) {
	now = start[j]
	for (k = 0; (id, k) in list; k++) {
		split(list[id, k], word, " ")
		if (word[1] == "end") return
		if (word[1] == "idle") {
			if (word[2] + 0 > now) now = word[2] + 0
			continue
		}
		q = word[2]
		if (now < round_start[q] + release[job[q]]) now = round_start[q] + release[job[q]]
		takes = now + left[q, j] > word[3] ? word[3] - now : left[q, j]
		if (takes <= 0) continue
		left[q, j] -= takes
		run[id, ++runs[id]] = now " " (now + takes) " " job[q] " " (left[q, j] == 0)
		now += takes
		if (left[q, j] == 0) end_job(q, now)
	}
}

function end_job(q, now) {
	done_at[q] = now
	if (now - round_start[q] > latest[job[q]] + 0) disagree("the walk of the schedules has " job[q] " done at " now - round_start[q] ", later than times tells")
}

function end_path(jobs, stays,    q, load, i, key) {
	paths++
	for (q = 0; q < jobs; q++) load += worst[job[q]]
	if (load > busiest + 0) disagree("the walk of the schedules found a path of " counted(load, "tick") " where times tells " busiest " at most")
	if (!stays) return
	for (i = 1; i <= roots; i++) key = key " " chosen[i, 1]
	for (q = 0; q < jobs; q++) stay_done[key, job[q], round_start[q]] = done_at[q]
}

# What `plan` prints of a choice of modes that stays has to be what the walk found on its path. With refinements it may be earlier: what
# refines an abstract job is done within its time, and what comes behind it may begin before that is over.
function compare_plans(    p, k, word, name, top, at, found) {
	for (p = 1; p <= plans; p++)
		for (k = 1; k <= plan_dones[p]; k++) {
			split(plan_done[p, k], word, " ")
			name = word[1]
			top = top_of(name)
			at = word[2] - (word[2] - 1) % period_of[module_of(name)] - 1
			if (!((root_choice[p], top, at) in stay_done)) disagree("the walk of the schedules lacks the job of " name " that plan tells")
			found = stay_done[root_choice[p], top, at]
			if (has_parents() ? found < word[2] + 0 : found != word[2] + 0) disagree("the walk of the schedules disagrees with plan on " name " at " word[2])
		}
}

# The job of the first program in whose time a job runs.
function top_of(name) {
	while (name in parent) name = parent[name]
	return name
}

# By when a job is done at the latest; one of a refinement within the time of its parent; empty where nothing serves it.
function done_by(name) {
	name = top_of(name)
	return name in latest ? latest[name] : ""
}
