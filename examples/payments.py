"""A worker for the activities of docs/write/WORKFLOWS-WITHOUT-CODE.md. It needs `pip install temporalio`."""

import asyncio
from temporalio import activity
from temporalio.client import Client
from temporalio.worker import Worker


@activity.defn(name="ChargeCard")
async def charge_card(order: dict) -> str:
    print("charged", order["price"])
    return "receipt"


async def main():
    client = await Client.connect("localhost:7233")
    await Worker(client, task_queue="payments", activities=[charge_card]).run()


asyncio.run(main())
