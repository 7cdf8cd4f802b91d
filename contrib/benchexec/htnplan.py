"""Tool-info module of htnplan for BenchExec, from memory of its interface.

A task with two input files, a domain and a problem, is planned; one with a plan as third file is verified. Options of
`plan` stand in the benchmark definition, as `<option name="--nodes">200</option>`."""
import benchexec.result as result
from benchexec.tools.template import BaseTool2

# The results of statuses other than 1 and 4; every other status is an error.
RESULTS = {
    0: result.RESULT_DONE,
    3: "REFUSED",
    6: "UNKNOWN",
}


class Tool(BaseTool2):
    def executable(self, tool_locator):
        return tool_locator.find_executable("htnplan")

    def name(self):
        return "htnplan"

    def version(self, executable):
        return self._version_from_tool(executable, line_prefix="htnplan")

    def cmdline(self, executable, options, task, rlimits):
        files = list(task.input_files)
        command = "verify" if len(files) == 3 else "plan"
        return [executable, command, *options, *files]

    def determine_result(self, run):
        # The value is None where a signal ended the program; BenchExec itself knows of its own limits.
        status = run.exit_code.value
        lines = [line.strip() for line in run.output if line.strip()]
        last = lines[-1] if lines else ""
        if status == 1 and last:
            # `none`, `unsolvable`, or `invalid:` and the cause.
            return last
        if status == 4:
            return "NO THREAD" if last == "NoThread" else "OUT OF MEMORY"
        return RESULTS.get(status, result.RESULT_ERROR)
