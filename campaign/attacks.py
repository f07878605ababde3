"""What a producer may send beside its readings so as to change what others are told: each attack is some lines.

The session is that of examples/pipelines/alerts.bq, with a query `hot` over the streams Temp and Lim; the producer owns Temp.
"""
from collections import namedtuple

# whether it changes an answer, or fills the output, where the session is open
Attack = namedtuple("Attack", "name lines bites")

FORGED = "CREATE QUERY hot AS SELECT Temp.room FROM Temp WHERE Temp.room = 42424"
WIDE = "CREATE QUERY w%d AS SELECT DISTINCT Temp.room FROM Temp WHERE Temp.room > 0 AND Temp.room < 60000"

ATTACKS = [
    Attack("a query is dropped", ["DROP QUERY hot"], True),
    Attack("a query is dropped and forged", ["DROP QUERY hot", FORGED, "Temp,42424,1"], True),
    Attack("a statement in odd letters and blanks", ["  dRoP\tquery   hot ;"], True),
    Attack("a statement that ends in CR", ["DROP QUERY hot\r"], True),
    Attack("the rows are used up", ["RESUME 1099511627776"], False),
    Attack("a tuple is said to be printed", ["RESUME hot SELECT 1002"], False),
    Attack("a cell is loaded", ["RESUME hot FROM 0 5", "RESUME hot AS 5"], False),
    Attack("checkpoints are asked for", ["CHECKPOINT"] * 200, True),
    Attack("explanations are asked for", ["EXPLAIN hot"] * 200, True),
    Attack("the catalog is filled", [f"CREATE STREAM Z{number} (a)" for number in range(20)], True),
    Attack("the queries are filled", [WIDE % number for number in range(70)], True),
    Attack("the owner is shut out", ["LOCK 5"], True),
    Attack("the session is locked to another stream", ["LOCK TO Lim"], True),
    Attack("the key is guessed", [f"UNLOCK {number}" for number in range(-500, 500)], False),
    Attack("a limit of another producer is raised", ["Lim,1002,999"], False),
    Attack("a limit of another producer is lowered", ["Lim,1003,-999", "Temp,1003,1"], True),
    Attack("rows of streams that are not there", ["Nobody,1,2"] * 100, False),
    Attack("lines that are too long", ["x" * 5000, "Temp," + "1" * 5000, "UNLOCK " + "9" * 5000], False),
    Attack("bytes that are no text", ["\x00\x01\x02", "\ufeffTemp,1002,999", "Temp\x00,1002,999"], False),
    Attack("comments and empty lines", ["-- DROP QUERY hot", "", "   ", "\t"] * 50, False),
    Attack("separators of other tools", [";;;", "{}", "[]", '"', "'", "\\", "`", "$(date)", "%s%n"], False),
    Attack("a stream under the name of a word", ["CREATE STREAM LOCK (a)", "LOCK,5", "UNLOCK,5"], False),
]
