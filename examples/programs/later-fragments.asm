        ldh [6]
        jset #0x1fff,keep,other
keep:   ret #65535
other:  ret #0
