bril-profile 2
trace @main .next T 20
trace @main .times T 19
