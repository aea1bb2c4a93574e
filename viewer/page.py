"""Turns what `mx replay --json` or `mx judge --json` prints into a page of HTML, which shows the run step by step
(docs/PICTURES.md). The page is one file that needs no other; its parts are in the folder viewer.

Usage: mx replay PLAN EVENTS --json [--state] | ./page > run.html    or    mx judge PLAN TRACE --json | ./page > run.html
With `--state`, the line of its node follows each event: it says what the node knows from then on."""
import command
import lines

if __name__ == "__main__":
    command.main("page", __doc__, lambda given: command.put(lines.page_of(lines.lines_of(given))), reads=True)
