# what the deployment adds
bin/kafka-acls.sh --bootstrap-server localhost:9092 --add --allow-principal User:search --consumer --topic catalog --group search
kafka-acls --add --allow-principal User:catalog --producer --topic catalog
kafka-acls --add --deny-principal User:catalog --deny-host 10.6.6.6 --operation Write --topic catalog
