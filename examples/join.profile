bril-profile 2
trace @main .next TTT 101
