module office

go 1.19
