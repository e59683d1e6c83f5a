        ldb [9]
        jeq #17,udp,other
udp:    st M[0]
other:  ld M[0]
        ret a
