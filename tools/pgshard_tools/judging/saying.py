"""Prints a report in the forms that the options request, and returns the exit status."""

from typing import Any

from pgshard_tools.judging import monitoring, report
from pgshard_tools.judging.options import Options
from pgshard_tools.judging.report import Report


def say(answer: Report, options: Options, more: dict[str, Any] | None = None, ending: str = "") -> int:
    """Prints a report, with more keys as JSON or more lines at its end, and writes the file for Prometheus."""
    if options.detailed_status:
        answer.status = monitoring.detailed(answer, options.strict)
    if options.prometheus is not None:
        monitoring.write_metrics(options.prometheus, monitoring.metrics([answer], answer.status))
    if options.nagios:
        line, status = monitoring.plugin_line(answer, options.strict)
        print(line, flush=True)
        return status
    if options.json:
        print(report.json_text(answer, more), flush=True)
        return answer.status
    print(report.text(answer, options.all) + ending, flush=True)
    return answer.status
