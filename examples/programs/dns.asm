        ldb [9]
        jeq #17,udp,other
udp:    ldh [6]
        jset #0x1fff,other,first
first:  ldx 4*([0]&0xf)
        ldh [x+2]
        jeq #53,keep,other
keep:   ret #65535
other:  ret #0
