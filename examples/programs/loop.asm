again:  ldb [0]
        ja again
        ret #0
