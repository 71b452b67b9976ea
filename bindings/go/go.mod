module vesgrauf

go 1.19
