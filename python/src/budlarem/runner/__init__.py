"""Tasks of any number, each with a sealed result file: lists in chunks (`budlarem run`), and shards.

`store` writes and reads results. `backends` do the work: threads of this process, or the workers of a cluster by `dask`,
whose replies `replies` opens. `dispatch` has a backend do tasks, and validates and stores their output. `input` reads
a list, `chunks` has its work and validates verdicts, `pass_folder` has the results of a pass. `passes` runs one pass
after another: a later pass decides the holdouts of the earlier one. `folder` has the files of a run.
"""
