; The primes below 30.

        PUBLIC  TABLE,TABEND

TABLE:  DW      2,3,5,7,11
        DW      13,17,19,23,29
TABEND:
