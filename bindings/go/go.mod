module locktable

go 1.19
