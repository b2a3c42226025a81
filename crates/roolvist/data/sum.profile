bril-profile 1
trace @main .head T
