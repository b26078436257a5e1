module bank

go 1.19

require locktable v0.0.0

replace locktable => ../../go
