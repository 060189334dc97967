module yomskafi.example/gateway

go 1.19

require yomskafi.example/lineprotocol/v3 v3.0.0

replace yomskafi.example/lineprotocol/v3 => ../bindings/go
