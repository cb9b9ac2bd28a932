module s10client

go 1.19
