        ldx 4*([0]&0xf)
        ldh [x+0]
        mod #3
        ret a
