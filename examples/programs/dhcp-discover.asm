        ldb [9]
        jeq #17,udp,other
udp:    ldh [6]
        jset #0x1fff,other,first
first:  ldx 4*([0]&0xf)
        ldh [x+2]
        jeq #67,server,other
server: ld [x+244]
        jeq #0x63825363,cookie,other
cookie: ldb [x+248]
        jeq #53,type,other
type:   ldb [x+250]
        jeq #1,keep,other
keep:   ret #65535
other:  ret #0
