"""./qq drill N --check: the independent model runs the lines of a drill too, and its counts stand beside the
program's."""
import subprocess
import sys

import model  # it lets the modules of the model be imported
from cluster import Cluster
from summaries import summary
from workloads import Drill, QUEUES

GROUP = 3


def model(number, nodes):
    """Returns the line that the model prints for a drill, and the confirms that haven't one publish of their own."""
    cluster = Cluster(nodes, QUEUES, GROUP)
    Drill(cluster, number).make()
    cluster.audits()
    counts, wrong = summary("".join(cluster.output))
    return f"drill {number} {counts}", wrong


def compare(program, asked):
    """Says what the model prints for a drill. The status is 1 where the program prints something else."""
    number, nodes = int(asked.numbers[0]), int(asked.values.get("--nodes", 3))
    printed = subprocess.run([program, "drill", str(number), f"--nodes={nodes}"], stdout=subprocess.PIPE, check=False)
    wanted, wrong = model(number, nodes)
    print(f"qq: the model prints\n{wanted}", file=sys.stderr)
    for session, queue, confirmed in wrong:
        print(
            f"qq: confirmed {confirmed} of session {session} at {queue} hasn't one publish of its own", file=sys.stderr
        )
    agrees = printed.stdout.decode("latin-1") == wanted + "\n" and not wrong
    print(f"qq: they {'agree' if agrees else 'differ'}", file=sys.stderr)
    return 0 if agrees else 1
