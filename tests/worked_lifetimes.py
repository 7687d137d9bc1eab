"""Scripts whose lifetimes were worked out by hand: how is said above each."""
from lifetime import SECOND
from stages import command_rows, fault_rows

MOST_SECONDS = 4_294_967_295


def script(top, *rows):
    """The text of a script with these top keys, then rows of lines."""
    return "\n".join([top, *(line for row in rows for line in row)]) + "\n"


def at(moment, *words):
    """The lines of a command at this moment, in seconds."""
    return command_rows(round(moment * SECOND), words)


def to_and_fro(top, *moments):
    """Bucket 0 goes from server 1 to server 2, back, and so on."""
    return script(top, *(at(moment, "move", 0, 1 + number % 2) for number, moment in enumerate(moments, 1)))


UNBOUNDED = ["lifetime unbounded"]
# The timeout of 19 seconds less the 12,259,840 nanoseconds by which clocks may run ahead.
BY_19_S = ["lifetime 18.987740160", "bound timeout_s 19"]
NO_TIME = ["lifetime 0.000000000", "bound route turn"]
BY_TURN = 'timeout_s = 19\nmuxes = 2\nroute = "turn"\n'
BY_PORT = "timeout_s = 19\nmuxes = 2\n"
# Each script with its name, its lines, and the most whole seconds that a connection may live.
WORKED = [
    ("no change", "timeout_s = 19", UNBOUNDED, MOST_SECONDS),
    # server 1 weighs 1 already, so no bucket moves
    ("a change that moves no bucket", script("version = 2", at(1, "weight", 1, 1)), UNBOUNDED, MOST_SECONDS),
    ("one drain", script("timeout_s = 19", at(1, "drain", 1)), BY_19_S, 18),
    ("two moves of a bucket", to_and_fro("timeout_s = 19", 1, 2), BY_19_S, 18),
    # from 1 to 6; the timeout is next
    (
        "three moves within the timeout",
        to_and_fro("timeout_s = 19", 1, 3, 6),
        ["lifetime 5.000000000", "bound changes 1 3 buckets 1 first 0", "raise change 3 by 13.987740160 to 18.987740160"],
        5,
    ),
    # from 1 to 6 takes 5, from 3 to 7.5 takes 4.5
    (
        "a bucket moves there and back, and again",
        to_and_fro("timeout_s = 19", 1, 3, 6, 7.5),
        ["lifetime 4.500000000", "bound changes 2 4 buckets 1 first 0", "raise change 4 by 0.500000000 to 5.000000000"],
        4,
    ),
    # both spans take 2, and the first counts
    (
        "two spans of a bucket",
        to_and_fro("timeout_s = 19", 1, 2, 3, 4),
        ["lifetime 2.000000000", "bound changes 1 3 buckets 1 first 0", "raise change 3 by 16.987740160 to 18.987740160"],
        2,
    ),
    # bucket 3 moves by changes 1, 3 and 5, bucket 2 by 2, 4 and 6, both within 5; the lower bucket counts
    (
        "two buckets",
        script(
            "timeout_s = 19",
            *(at(1, "move", 3, 1), at(2, "move", 2, 2), at(3, "move", 3, 2), at(4, "move", 2, 1)),
            *(at(6, "move", 3, 1), at(7, "move", 2, 2)),
        ),
        ["lifetime 5.000000000", "bound changes 2 6 buckets 2 first 2", "raise change 6 by 13.987740160 to 18.987740160"],
        5,
    ),
    (
        "three changes at one moment",
        to_and_fro("timeout_s = 19", 5, 5, 5),
        ["lifetime 0.000000000", "bound changes 1 3 buckets 1 first 0", "raise change 3 by 18.987740160 to 18.987740160"],
        0,
    ),
    # Buckets 0 to 7 open on servers 1, 2, 3, 4, 1, 2, 3, 4. The first drain gives 2 and 6 to server 1, the second 0 to 2, and 2 and 4
    # to 4, the third all that 4 has to 2: so bucket 2 alone moves three times, from 1 to 4.
    (
        "three drains",
        script("timeout_s = 30\nservers = [1, 2, 3, 4]", at(1, "drain", 3), at(2, "drain", 1), at(4, "drain", 4)),
        ["lifetime 3.000000000", "bound changes 1 3 buckets 1 first 2", "raise change 3 by 26.987740160 to 29.987740160"],
        3,
    ),
    # The odd buckets are in rack 1. 1 and 5 open on server 2, 3 and 7 on server 4. Server 6 gets 7. Server 2 leaves 1 to 4 and 5 to 6.
    # Server 4 leaves 1 and 3 to 6. Server 8 gets 5 and 7. Server 6 leaves 1 and 3 to 8. So bucket 1 moves by changes 2, 3 and 5.
    (
        "racks",
        script(
            "version = 3\nracks = 2\ntimeout_s = 22\nservers = [1, 2, 3, 4]",
            *(at(1, "add", 6, 1), at(2, "drain", 2), at(3, "drain", 4), at(4, "add", 8, 1), at(5, "drain", 6)),
        ),
        ["lifetime 3.000000000", "bound changes 2 5 buckets 1 first 1", "raise change 5 by 18.987740160 to 21.987740160"],
        3,
    ),
    # Each server opens with three of nine buckets. With weight 4 server 1 has a quota of 6, and 2 and 3 have 2 and 1: it gets 5, 7 and 8.
    # With weight 1 it gives 6 to 2, and 7 and 8 to 3. With weight 4 it gets 6, 7 and 8. So 7 and 8 move three times, 1 to 3.5.
    (
        "weights",
        script(
            "version = 2\nbuckets = 9\nservers = [1, 2, 3]\ntimeout_s = 19",
            *(at(1, "weight", 1, 4), at(2, "weight", 1, 1), at(3.5, "weight", 1, 4)),
        ),
        ["lifetime 2.500000000", "bound changes 1 3 buckets 2 first 7", "raise change 3 by 16.487740160 to 18.987740160"],
        2,
    ),
    # 19 less 2 and the 12,259,840 nanoseconds
    ("equal lags, by turn", to_and_fro(BY_TURN + "lags_ns = [2_000_000_000, 2_000_000_000]", 1), ["lifetime 16.987740160", "bound timeout_s 19"], 16),
    # the longest lag counts
    ("unequal lags, by port", to_and_fro(BY_PORT + "lags_ns = [0, 3_000_000_000]", 1), ["lifetime 15.987740160", "bound timeout_s 19"], 15),
    ("unequal lags, by turn", to_and_fro(BY_TURN + "lags_ns = [0, 1]", 1), NO_TIME, 0),
    ("unequal lags, by turn, three moves", to_and_fro(BY_TURN + "lags_ns = [0, 1]", 1, 1, 1), NO_TIME, 0),
    ("unequal lags, by turn, longer than the timeout", to_and_fro(BY_TURN + "lags_ns = [0, 20_000_000_000]", 1, 2, 9), NO_TIME, 0),
    ("unequal lags, by turn, a change at moment 0", to_and_fro(BY_TURN + "lags_ns = [0, 1]", 0), NO_TIME, 0),
    ("unequal lags, by turn, no bucket moves", script("version = 2\n" + BY_TURN + "lags_ns = [0, 1]", at(1, "weight", 1, 1)), NO_TIME, 0),
    ("unequal lags, by turn, no change", BY_TURN + "lags_ns = [0, 1]", UNBOUNDED, MOST_SECONDS),
    # 19 less three times 1, the longest delay
    (
        "delays",
        script("timeout_s = 19", fault_rows((1, "direct", 1, 1)), fault_rows((2, "chained", 2, SECOND)), at(1, "drain", 1)),
        ["lifetime 15.987740160", "bound timeout_s 19"],
        15,
    ),
    # the delay of a row counts where it makes no copies, and where another row stands before it
    ("a delay of no copies", script("timeout_s = 19", fault_rows((1, "direct", 0, 2 * SECOND)), at(1, "drain", 1)), ["lifetime 12.987740160", "bound timeout_s 19"], 12),
    (
        "a second row for a packet",
        script("timeout_s = 19", fault_rows((1, "direct", 1, 1)), fault_rows((1, "direct", 1, 3 * SECOND)), at(1, "drain", 1)),
        ["lifetime 9.987740160", "bound timeout_s 19"],
        9,
    ),
    # 19 less three times 1, 2 and 12,259,840 nanoseconds
    (
        "delays and lags",
        script("timeout_s = 19\nlags_ns = [2_000_000_000]", fault_rows((9, "direct", 1, SECOND)), at(1, "drain", 1)),
        ["lifetime 13.987740160", "bound timeout_s 19"],
        13,
    ),
    # no packet comes before moment 0, so the bucket moves twice
    ("a first change at moment 0", to_and_fro("timeout_s = 19", 0, 1, 3), BY_19_S, 18),
    ("all changes at moment 0", to_and_fro("timeout_s = 19", 0, 0, 0), UNBOUNDED, MOST_SECONDS),
    # with a lag packets may come before it, so the bucket moves three times; the timeout less a nanosecond more is next
    (
        "a first change at moment 0 with a lag",
        to_and_fro("timeout_s = 19\nlags_ns = [1]", 0, 1, 3),
        ["lifetime 3.000000000", "bound changes 1 3 buckets 1 first 0", "raise change 3 by 15.987740159 to 18.987740159"],
        3,
    ),
    # the timeout is 1, and what is to be taken from it more; the moves take 5, for which it has to be above 6.012259840
    (
        "a timeout that is too short",
        to_and_fro("timeout_s = 1\nlags_ns = [1_000_000_000]", 1, 3, 6),
        ["lifetime 0.000000000", "bound timeout_s 1", "raise timeout_s 7 to 5.000000000"],
        0,
    ),
    ("a timeout that is too short for one drain", script("timeout_s = 1\nlags_ns = [1_000_000_000]", at(1, "drain", 1)), ["lifetime 0.000000000", "bound timeout_s 1"], 0),
    # from 1 to 33; for 32 the timeout has to be above 32.012259840
    ("the timeout bounds, moves are next", to_and_fro("timeout_s = 19", 1, 2, 33), BY_19_S + ["raise timeout_s 33 to 32.000000000"], 18),
    # from 1 to 19.98774016 as long as the timeout allows, from 2 to 22 next
    (
        "both bound",
        to_and_fro("timeout_s = 19", 1, 2, 19.98774016, 22),
        [*BY_19_S, "bound changes 1 3 buckets 1 first 0", "raise timeout_s 21 to 20.000000000", "raise change 3 by 1.012259840 to 20.000000000"],
        18,
    ),
    # for the next bound, from 1 to 86,401, no timeout is long enough
    ("the longest timeout", to_and_fro("timeout_s = 86400", 1, 2, 86401), ["lifetime 86399.987740160", "bound timeout_s 86400"], 86399),
    # for the next bound, from 1 to 86,400.98774016, just the longest timeout is
    (
        "almost the longest timeout",
        to_and_fro("timeout_s = 86399", 1, 2, 86400.98774016),
        ["lifetime 86398.987740160", "bound timeout_s 86399", "raise timeout_s 86400 to 86399.987740160"],
        86398,
    ),
]
