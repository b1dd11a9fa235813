module gotable

go 1.19
