"""The trials: programs that run the built programs as their users do, as real processes on real sockets and files. One of them tries the
prover instead.

Each script at the top of the repository lists what it tries, and a folder here has the code:

    ./trial           oramd/      oramd, as host, formatting and proxy
    ./trial_disk      host/       `oramdisk host`
    ./trial_nbd       nbd/        a disk of oramdisk, over NBD
    ./trial_formats   formats/    what a disk's two sides keep, read as docs/formats.md says
    ./trial_memory    memory/     programs whose allocations are refused
    ./trial_readme    readme/     the commands of the README, and the units of contrib/systemd
    ./trial_rows      rows/       the row programs on their rows, and the built programs on the rows of the folder `rows`
    ./trial_volume    volume/     a host whose file lies on a replicated volume
    ./trial_edits     edits/      the must-fail edits, which the prover has to refuse
    ./measure         measuring/  how long a disk takes over a line with a delay and a rate; it judges nothing

What several of them use is in the modules of this folder:

    programs          where the built programs are, and whether they are up to date
    unproved          how a program is built without proofs
    trial, tally      what the parts of one trial share; the counts of what held and what didn't
    processes, ports  how processes are started and how they end; free ports
    connections, relay  connections and frames; what is between a host and its clients, and cuts their connections
    settings          settings files
    statuses          the statuses with which oramdisk ends
    strace            system calls: counted, in their order, and made to fail
    bucket_messages   the messages to a bucket host, and a model of such a host
    bucket_host       `oramdisk host` in a folder of its own, and its clients
    bucket_file       the two files in which a host keeps its buckets
    nbd_client        a client of NBD
    disk              a disk in a folder of its own, with its host
    disk_array        the plain array that a disk has to be like, and random requests
"""
