module vesgrauf/quic

go 1.19

require (
	github.com/lucas-clemente/quic-go v0.29.0
	vesgrauf v0.8.0
)

replace vesgrauf => ../
