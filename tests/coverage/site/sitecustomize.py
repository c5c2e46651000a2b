"""Read by every Python that has this folder in PYTHONPATH: where REACHED names a folder, the lines of the package `dating` that are reached are written there,
a file for each process. A process that is killed tells nothing."""
import os

if "REACHED" in os.environ:
    import atexit
    import sys
    import threading

    SEEN: dict = {}
    WHOLE: set = set()
    LINES: dict = {}
    PACKAGE = os.sep + os.path.join("host", "python", "dating") + os.sep

    def call(frame, event, argument):
        code = frame.f_code
        if code in WHOLE or PACKAGE not in code.co_filename:
            return None
        if code not in LINES:
            LINES[code] = {line for _, _, line in code.co_lines() if line}
        seen = SEEN.setdefault(code, set())

        def line(frame, event, argument):
            seen.add(frame.f_lineno)
            return line

        seen.add(frame.f_lineno)
        if LINES[code] <= seen:
            WHOLE.add(code)
            return None
        return line

    def written():
        sys.settrace(None)
        found: dict = {}
        for code, lines in list(SEEN.items()):
            found.setdefault(code.co_filename, set()).update(lines)
        with open(os.path.join(os.environ["REACHED"], f"{os.getpid()}-{os.urandom(4).hex()}"), "w") as file:
            for name, lines in found.items():
                file.write(f"{name}\t{' '.join(map(str, sorted(lines)))}\n")

    def forked():
        SEEN.clear()

    def ended(status, exit=os._exit):
        written()
        exit(status)

    os._exit = ended
    os.register_at_fork(after_in_child=forked)
    atexit.register(written)
    threading.settrace(call)
    sys.settrace(call)
