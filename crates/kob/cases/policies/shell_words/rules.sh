# as Kafka's documentation has them, in "Authorization and ACLs"
bin/kafka-acls.sh --bootstrap-server localhost:9092 --add --allow-principal User:Bob --allow-principal User:Alice --allow-host 198.51.100.0 --allow-host 198.51.100.1 --operation Read --operation Write --topic Test-topic
bin/kafka-acls.sh --bootstrap-server localhost:9092 --add --allow-principal User:'*' --allow-host '*' --deny-principal User:BadBob --deny-host 198.51.100.3 --operation Read --topic Test-topic
bin/kafka-acls.sh --bootstrap-server localhost:9092 --add --allow-principal User:Peter --allow-host 198.51.200.1 --producer --topic '*'
bin/kafka-acls.sh --bootstrap-server localhost:9092 --add --allow-principal User:Jane --producer --topic Test- --resource-pattern-type prefixed
bin/kafka-acls.sh --authorizer-properties zookeeper.connect=localhost:2181 --add --allow-principal "User:CN=Bob, O=Acme" --operation Read --topic "a b"
kafka-acls --bootstrap-controller localhost:9093 --command-config=ad\ min.properties --force --add --deny-principal User:\* --operation All --topic it\'s
kafka-acls --authorizer=kafka.security.authorizer.AclAuthorizer --add --allow-principal User:y --operation 'Rea'd --topic "50%\"\\"
