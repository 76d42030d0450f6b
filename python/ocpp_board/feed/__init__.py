"""Messages of a CSMS that publishes them: a queue of RabbitMQ, a topic of an MQTT broker, acknowledged once stored.

`published.py` reads a message, `rabbitmq.py` and `mqtt.py` take it from a broker and acknowledge it, `keeper.py` has it
settled in the store, again and again where the store is away, and counts.
"""
