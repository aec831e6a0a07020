# The switches of a source that has been read without a fault, a line for each: the mode, MODULE.MODE, the target and the condition.

# A condition as it would be written: `&&` and the like as one, no blank inside brackets or behind a sign of one operand.
function joined(out, token,    end) {
	end = substr(out, length(out))
	if (out == "" || token ~ /^[),]$/ || end == "(" || end == "!" && token != "=" || is_sign) return out token
	if (token == "=" && end ~ /[=!<>]/ || token ~ /^[&|]$/ && end == token && !closed) return out token
	if (token == "(" && before == "if") return out token
	return out " " token
}

function read(token) {
	if (in_switch) {
		if (token == "(" && depth++ == 0) return
		if (token == ")" && --depth == 0) {
			print module "." mode, target, condition
			in_switch = 0
			return
		}
		if (depth == 1 && token == ",") {
			in_target = 1
			return
		}
		if (in_target) target = token
		else {
			condition = joined(condition, token)
			closed = token ~ /^[&|]$/ && before == token
			is_sign = token ~ /^[-]$/ && before !~ /^[A-Za-z0-9_)]/
			before = token
		}
		return
	}
	if (want == "module") module = token
	if (want == "mode") mode = token
	want = ""
	if (token == "module" || token == "mode") want = token
	if (token == "switch") {
		in_switch = 1
		depth = in_target = is_sign = closed = 0
		condition = before = ""
	}
}

{
	sub(/\/\/.*/, "")
	gsub(/[\r\t]/, " ")
	gsub(/[^A-Za-z0-9_ ]/, " & ")
	n = split($0, token, " ")
	for (i = 1; i <= n; i++) read(token[i])
}
