        ldb [9]
        jeq #17,udp,other
udp:    ldx 4*([0]&0xf)
        txa
        add #8
        ret a
other:  ret #0
