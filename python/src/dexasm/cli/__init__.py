"""The helpers around the command dexasm, each a module with a `main`.

main.py has the command line and exit statuses, core.py runs dexasm, inputs.py and zip_read.py read files and archives,
sanitize.py makes text safe to print. dexasm-check: check.py, its files and workers in scheduler.py, a worker's job in
job.py, its output in reporters.py.
"""
