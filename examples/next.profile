bril-profile 2
trace @main .next T 20
