"""`btx compare` over a Dask cluster: the jobs below some folders, compared on all machines of the cluster.

    dask-scheduler --host 127.0.0.1 --port 8786
    dask-worker 127.0.0.1:8786 --nthreads 1          on each machine, as often as it has processors
    python3 compare.py --scheduler 127.0.0.1:8786 FOLDER..

Each machine needs the package `btx`, TeX, and the folders under the same paths. One without the package ends the comparison. Jobs share nothing. Those of a worker that is lost are run again by
another one. What is printed is what `python3 -m btx compare` prints on one machine, in the order of the jobs' names."""

import os
from concurrent.futures import CancelledError

from btx.commands import Words
from btx.compare import add_conditions, compared_piece, complain, found_program, not_run, status_of
from btx.corpus import found_jobs
from btx.reports import Table
from distributed import Client, as_completed

# How many jobs are one piece of work: a message for each job would take longer than the job.
JOBS_IN_A_PIECE = 50


def words():
    parser = Words(description="Compares reference lists over a Dask cluster.")
    parser.add_argument("--scheduler", metavar="ADDRESS", required=True, help="where the scheduler listens: HOST:PORT")
    add_conditions(parser)
    return parser.parse_args()


def main():
    given = words()
    try:
        program = found_program(given.program)
    except FileNotFoundError as error:
        return complain(str(error))
    refused = []
    jobs = found_jobs(map(os.fsencode, given.folders), refused.append)
    status = max(map(complain, refused), default=0)
    table = Table()
    with Client(given.scheduler) as client:
        # (two pieces with the same jobs are never the same work: a file may have changed)
        try:
            compare_all(jobs, lambda piece: client.submit(compared_piece, piece, given.budget, program, given.time_limit, pure=False), table)
        except ImportError as error:
            status = complain(f"the package btx, or its library, is missing on the workers: {error}")
    for result in table.sorted():
        if result.outcome != "equal":
            print(result)
    table.end(False)
    return status or status_of(table, given.allow_not_run)


def compare_all(jobs, ask, table):
    """Has all jobs compared in pieces, by what `ask` begins for each; their results go into the table. Raises ImportError where a worker can't load the package: it would answer all pieces so."""
    asked = {ask(piece): piece for piece in (jobs[begin:begin + JOBS_IN_A_PIECE] for begin in range(0, len(jobs), JOBS_IN_A_PIECE))}
    waited_for = as_completed(asked)
    for future in waited_for:
        results, alone = results_of(future, asked.pop(future))
        for job in alone:
            again = ask([job])
            asked[again] = [job]
            waited_for.add(again)
        for result in results:
            table.add(result)


def results_of(future, piece):
    """What a piece of work came to, and which of its jobs are to be run alone: where it was lost more often than Dask tries again, all of them, so that
    one job that ends its worker doesn't take the others with it. Such a job wasn't run."""
    try:
        return future.result(), []
    except ImportError:
        raise
    except (Exception, CancelledError) as error:
        if len(piece) > 1:
            return [], piece
        return [not_run(job, f"its worker was lost: {error}") for job in piece], []


if __name__ == "__main__":
    raise SystemExit(main())
