/* Runs a compute module on the first Vulkan device and writes back what its buffers hold then.
 *
 * usage: vulkan_host MODULE X Y Z (storage|uniform SET BINDING FILE)* (push FILE)?
 *
 * X Y Z are how many work groups are run. Each FILE has the bytes of a buffer, which those that the device leaves replace, or the
 * push constants. Ends with status 0, or with 2 and a line on standard error. */
#include <stdint.h>
#include <stdio.h>
#include <stdlib.h>
#include <string.h>
#include <vulkan/vulkan.h>

#define MOST 64
#define DO(call)                                                          \
    do {                                                                  \
        VkResult result = (call);                                         \
        if (result != VK_SUCCESS) fail(#call, (int)result);               \
    } while (0)

struct bytes {
    uint8_t *at;
    size_t count;
};

struct buffer {
    uint32_t set, binding;
    VkDescriptorType kind;
    const char *path;
    struct bytes given;
    VkBuffer buffer;
    void *mapped;
};

struct device {
    VkPhysicalDevice physical;
    VkDevice device;
    VkQueue queue;
};

static void fail(const char *what, int why) {
    fprintf(stderr, "vulkan_host: %s: %d\n", what, why);
    exit(2);
}

static struct bytes read_file(const char *path) {
    FILE *file = fopen(path, "rb");
    if (!file) fail(path, 0);
    fseek(file, 0, SEEK_END);
    struct bytes b = {NULL, (size_t)ftell(file)};
    rewind(file);
    b.at = calloc(1, b.count + 4);
    if (fread(b.at, 1, b.count, file) != b.count) fail(path, 1);
    fclose(file);
    return b;
}

static void write_file(const char *path, const void *at, size_t count) {
    FILE *file = fopen(path, "wb");
    if (!file || fwrite(at, 1, count, file) != count) fail(path, 2);
    fclose(file);
}

static struct device open_device(void) {
    struct device d;
    VkInstance instance;
    VkApplicationInfo app = {.sType = VK_STRUCTURE_TYPE_APPLICATION_INFO, .apiVersion = VK_API_VERSION_1_0};
    VkInstanceCreateInfo about = {.sType = VK_STRUCTURE_TYPE_INSTANCE_CREATE_INFO, .pApplicationInfo = &app};
    DO(vkCreateInstance(&about, NULL, &instance));
    uint32_t one = 1;
    VkResult found = vkEnumeratePhysicalDevices(instance, &one, &d.physical);
    if ((found != VK_SUCCESS && found != VK_INCOMPLETE) || one == 0) fail("no device", (int)found);
    float priority = 1;
    VkDeviceQueueCreateInfo queue = {
        .sType = VK_STRUCTURE_TYPE_DEVICE_QUEUE_CREATE_INFO, .queueCount = 1, .pQueuePriorities = &priority};
    VkDeviceCreateInfo device = {
        .sType = VK_STRUCTURE_TYPE_DEVICE_CREATE_INFO, .queueCreateInfoCount = 1, .pQueueCreateInfos = &queue};
    DO(vkCreateDevice(d.physical, &device, NULL, &d.device));
    vkGetDeviceQueue(d.device, 0, 0, &d.queue);
    return d;
}

/* The first kind of memory that a buffer may stand in and that the host sees as it is. */
static uint32_t memory_kind(struct device *d, uint32_t may_be) {
    const VkMemoryPropertyFlags wanted = VK_MEMORY_PROPERTY_HOST_VISIBLE_BIT | VK_MEMORY_PROPERTY_HOST_COHERENT_BIT;
    VkPhysicalDeviceMemoryProperties kinds;
    vkGetPhysicalDeviceMemoryProperties(d->physical, &kinds);
    for (uint32_t k = 0; k < kinds.memoryTypeCount; k++)
        if ((may_be >> k & 1) && (kinds.memoryTypes[k].propertyFlags & wanted) == wanted) return k;
    fail("no memory of this kind", 0);
    return 0;
}

static void make_buffer(struct device *d, struct buffer *b) {
    VkBufferCreateInfo about = {.sType = VK_STRUCTURE_TYPE_BUFFER_CREATE_INFO, .size = b->given.count ? b->given.count : 1};
    about.usage = b->kind == VK_DESCRIPTOR_TYPE_UNIFORM_BUFFER ? VK_BUFFER_USAGE_UNIFORM_BUFFER_BIT
                                                                : VK_BUFFER_USAGE_STORAGE_BUFFER_BIT;
    DO(vkCreateBuffer(d->device, &about, NULL, &b->buffer));
    VkMemoryRequirements needs;
    vkGetBufferMemoryRequirements(d->device, b->buffer, &needs);
    VkMemoryAllocateInfo room = {.sType = VK_STRUCTURE_TYPE_MEMORY_ALLOCATE_INFO,
                                 .allocationSize = needs.size,
                                 .memoryTypeIndex = memory_kind(d, needs.memoryTypeBits)};
    VkDeviceMemory memory;
    DO(vkAllocateMemory(d->device, &room, NULL, &memory));
    DO(vkBindBufferMemory(d->device, b->buffer, memory, 0));
    DO(vkMapMemory(d->device, memory, 0, VK_WHOLE_SIZE, 0, &b->mapped));
    memcpy(b->mapped, b->given.at, b->given.count);
}

/* The layout of one set: a binding for each of its buffers. */
static VkDescriptorSetLayout lay_set(struct device *d, const struct buffer *buffers, uint32_t count, uint32_t set) {
    VkDescriptorSetLayoutBinding rows[MOST];
    uint32_t n = 0;
    for (uint32_t k = 0; k < count; k++)
        if (buffers[k].set == set)
            rows[n++] = (VkDescriptorSetLayoutBinding){.binding = buffers[k].binding,
                                                       .descriptorType = buffers[k].kind,
                                                       .descriptorCount = 1,
                                                       .stageFlags = VK_SHADER_STAGE_COMPUTE_BIT};
    VkDescriptorSetLayoutCreateInfo about = {
        .sType = VK_STRUCTURE_TYPE_DESCRIPTOR_SET_LAYOUT_CREATE_INFO, .bindingCount = n, .pBindings = rows};
    VkDescriptorSetLayout layout;
    DO(vkCreateDescriptorSetLayout(d->device, &about, NULL, &layout));
    return layout;
}

static VkDescriptorPool make_pool(struct device *d) {
    VkDescriptorPoolSize sizes[2] = {{VK_DESCRIPTOR_TYPE_STORAGE_BUFFER, MOST}, {VK_DESCRIPTOR_TYPE_UNIFORM_BUFFER, MOST}};
    VkDescriptorPoolCreateInfo about = {.sType = VK_STRUCTURE_TYPE_DESCRIPTOR_POOL_CREATE_INFO,
                                        .maxSets = MOST,
                                        .poolSizeCount = 2,
                                        .pPoolSizes = sizes};
    VkDescriptorPool pool;
    DO(vkCreateDescriptorPool(d->device, &about, NULL, &pool));
    return pool;
}

static void bind_buffer(struct device *d, VkDescriptorSet set, const struct buffer *b) {
    VkDescriptorBufferInfo whole = {.buffer = b->buffer, .range = b->given.count ? b->given.count : 1};
    VkWriteDescriptorSet row = {.sType = VK_STRUCTURE_TYPE_WRITE_DESCRIPTOR_SET,
                                .dstSet = set,
                                .dstBinding = b->binding,
                                .descriptorCount = 1,
                                .descriptorType = b->kind,
                                .pBufferInfo = &whole};
    vkUpdateDescriptorSets(d->device, 1, &row, 0, NULL);
}

static VkPipeline make_pipeline(struct device *d, VkPipelineLayout layout, struct bytes module) {
    VkShaderModuleCreateInfo code = {.sType = VK_STRUCTURE_TYPE_SHADER_MODULE_CREATE_INFO,
                                     .codeSize = module.count,
                                     .pCode = (const uint32_t *)module.at};
    VkComputePipelineCreateInfo about = {.sType = VK_STRUCTURE_TYPE_COMPUTE_PIPELINE_CREATE_INFO, .layout = layout};
    about.stage.sType = VK_STRUCTURE_TYPE_PIPELINE_SHADER_STAGE_CREATE_INFO;
    about.stage.stage = VK_SHADER_STAGE_COMPUTE_BIT;
    about.stage.pName = "main";
    DO(vkCreateShaderModule(d->device, &code, NULL, &about.stage.module));
    VkPipeline pipeline;
    DO(vkCreateComputePipelines(d->device, VK_NULL_HANDLE, 1, &about, NULL, &pipeline));
    return pipeline;
}

static VkCommandBuffer begin_commands(struct device *d) {
    VkCommandPool pool;
    VkCommandPoolCreateInfo about = {.sType = VK_STRUCTURE_TYPE_COMMAND_POOL_CREATE_INFO};
    DO(vkCreateCommandPool(d->device, &about, NULL, &pool));
    VkCommandBufferAllocateInfo one = {.sType = VK_STRUCTURE_TYPE_COMMAND_BUFFER_ALLOCATE_INFO,
                                       .commandPool = pool,
                                       .level = VK_COMMAND_BUFFER_LEVEL_PRIMARY,
                                       .commandBufferCount = 1};
    VkCommandBuffer commands;
    DO(vkAllocateCommandBuffers(d->device, &one, &commands));
    VkCommandBufferBeginInfo begin = {.sType = VK_STRUCTURE_TYPE_COMMAND_BUFFER_BEGIN_INFO};
    DO(vkBeginCommandBuffer(commands, &begin));
    return commands;
}

static void submit(struct device *d, VkCommandBuffer commands) {
    DO(vkEndCommandBuffer(commands));
    VkSubmitInfo about = {.sType = VK_STRUCTURE_TYPE_SUBMIT_INFO, .commandBufferCount = 1, .pCommandBuffers = &commands};
    DO(vkQueueSubmit(d->queue, 1, &about, VK_NULL_HANDLE));
    DO(vkQueueWaitIdle(d->queue));
}

/* Runs the module over the buffers, which are those of sets below `sets`. */
static void run(struct bytes module, const uint32_t groups[3], struct buffer *buffers, uint32_t count, uint32_t sets, struct bytes push) {
    struct device d = open_device();
    VkDescriptorPool pool = make_pool(&d);
    VkDescriptorSetLayout layouts[MOST];
    VkDescriptorSet bound[MOST];
    for (uint32_t set = 0; set < sets; set++) {
        layouts[set] = lay_set(&d, buffers, count, set);
        VkDescriptorSetAllocateInfo about = {.sType = VK_STRUCTURE_TYPE_DESCRIPTOR_SET_ALLOCATE_INFO,
                                             .descriptorPool = pool,
                                             .descriptorSetCount = 1,
                                             .pSetLayouts = &layouts[set]};
        DO(vkAllocateDescriptorSets(d.device, &about, &bound[set]));
    }
    for (uint32_t k = 0; k < count; k++) {
        make_buffer(&d, &buffers[k]);
        bind_buffer(&d, bound[buffers[k].set], &buffers[k]);
    }
    VkPushConstantRange range = {VK_SHADER_STAGE_COMPUTE_BIT, 0, (uint32_t)((push.count + 3) / 4 * 4)};
    VkPipelineLayoutCreateInfo about = {.sType = VK_STRUCTURE_TYPE_PIPELINE_LAYOUT_CREATE_INFO,
                                        .setLayoutCount = sets,
                                        .pSetLayouts = layouts,
                                        .pushConstantRangeCount = push.count > 0,
                                        .pPushConstantRanges = &range};
    VkPipelineLayout layout;
    DO(vkCreatePipelineLayout(d.device, &about, NULL, &layout));
    VkPipeline pipeline = make_pipeline(&d, layout, module);
    VkCommandBuffer commands = begin_commands(&d);
    vkCmdBindPipeline(commands, VK_PIPELINE_BIND_POINT_COMPUTE, pipeline);
    if (sets > 0) vkCmdBindDescriptorSets(commands, VK_PIPELINE_BIND_POINT_COMPUTE, layout, 0, sets, bound, 0, NULL);
    if (push.count > 0) vkCmdPushConstants(commands, layout, VK_SHADER_STAGE_COMPUTE_BIT, 0, range.size, push.at);
    vkCmdDispatch(commands, groups[0], groups[1], groups[2]);
    submit(&d, commands);
}

int main(int argc, char **argv) {
    if (argc < 5) fail("usage: vulkan_host MODULE X Y Z (storage|uniform SET BINDING FILE)* (push FILE)?", 0);
    uint32_t groups[3], count = 0, sets = 0;
    for (int k = 0; k < 3; k++) groups[k] = (uint32_t)strtoul(argv[2 + k], NULL, 10);
    static struct buffer buffers[MOST];
    struct bytes push = {NULL, 0};
    for (int k = 5; k + 1 < argc && count < MOST;) {
        if (strcmp(argv[k], "push") == 0) {
            push = read_file(argv[k + 1]);
            k += 2;
            continue;
        }
        if (k + 3 >= argc) break;
        struct buffer *b = &buffers[count++];
        b->kind = strcmp(argv[k], "uniform") == 0 ? VK_DESCRIPTOR_TYPE_UNIFORM_BUFFER : VK_DESCRIPTOR_TYPE_STORAGE_BUFFER;
        b->set = (uint32_t)strtoul(argv[k + 1], NULL, 10);
        b->binding = (uint32_t)strtoul(argv[k + 2], NULL, 10);
        b->path = argv[k + 3];
        b->given = read_file(b->path);
        if (b->set >= MOST) fail("the set is too large", (int)b->set);
        if (b->set >= sets) sets = b->set + 1;
        k += 4;
    }
    run(read_file(argv[1]), groups, buffers, count, sets, push);
    for (uint32_t k = 0; k < count; k++) write_file(buffers[k].path, buffers[k].mapped, buffers[k].given.count);
    return 0;
}
